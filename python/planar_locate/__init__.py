"""Where points lie in a layer of polygons, exactly: a layer for the proved program `locate`.

    from planar_locate import Layer

    layer = Layer("parcels.wkt", scale=0)
    print(layer.check())                      # Counts(features=5, corners=14, edges=17)
    index = layer.build("parcels.index")
    for answer in index.ask([(5, 5), ("40", "30")]):
        print(answer.name, answer.on, answer.covered_by)

Coordinates are decimal numbers in the unit of the layer, with at most `scale` decimals; nothing is rounded that is not asked for. Every
answer is that of the program, which `find_program` finds: the environment variable LOCATE, the script `locate` of the repository, or
`planar-locate` on the PATH. The package needs Python 3.9 and nothing else; numpy, pandas and geopandas are used where they are given.
"""
from ._answers import Answer, AnswerArrays
from ._errors import (BadWords, LocateError, NoMemory, ProgramNotFound, ReadFailed, Refused, Unread, WriteFailed)
from ._frames import sjoin
from ._layers import Counts, Index, IndexCounts, Layer, query
from ._program import find_program

__all__ = ["Answer", "AnswerArrays", "BadWords", "Counts", "Index", "IndexCounts", "Layer", "LocateError", "NoMemory", "ProgramNotFound",
           "ReadFailed", "Refused", "Unread", "WriteFailed", "find_program", "query", "sjoin"]
