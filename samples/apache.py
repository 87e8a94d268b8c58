#!/usr/bin/env python3
"""Spells a few batches with Apache Thrift's own compiler and library: the lines of `apache.hex`.

    /usr/bin/python3 samples/apache.py > samples/apache.hex

Needs Debian's packages thrift-compiler and python3-thrift. `jaeger.thrift` beside this file is compiled in a
temporary folder; each batch is written by `TBinaryProtocol`, with no message around it.
"""
import argparse
import os
import subprocess
import sys
import tempfile
from collections.abc import Iterator
from typing import Any

HERE = os.path.dirname(os.path.abspath(__file__))


def generated(folder: str) -> Any:
    """Returns the module of the structs of `jaeger.thrift`, as Apache's compiler writes it."""
    subprocess.run(["thrift", "--gen", "py", "-out", folder, os.path.join(HERE, "jaeger.thrift")],
                   check=True, stderr=subprocess.DEVNULL)
    sys.path.insert(0, folder)
    import jaeger.ttypes
    return jaeger.ttypes


def spelled(batch: Any) -> str:
    """Returns a batch as hexadecimal text."""
    from thrift.protocol.TBinaryProtocol import TBinaryProtocol
    from thrift.transport.TTransport import TMemoryBuffer
    buffer = TMemoryBuffer()
    batch.write(TBinaryProtocol(buffer))
    return buffer.getvalue().hex()


def batches(j: Any) -> Iterator[Any]:
    """Yields the batches, in the order of the lines."""
    yield j.Batch(process=j.Process(serviceName="a"), spans=[], seqNo=1)

    yield j.Batch(process=j.Process(serviceName="frontend"), spans=[
        j.Span(traceIdLow=1, traceIdHigh=0, spanId=2, parentSpanId=0, operationName="GET /", flags=1,
               startTime=1000, duration=50)])

    tags = [
        j.Tag(key="text", vType=j.TagType.STRING, vStr="grün"),
        j.Tag(key="double", vType=j.TagType.DOUBLE, vDouble=-2.5),
        j.Tag(key="bool", vType=j.TagType.BOOL, vBool=True),
        j.Tag(key="long", vType=j.TagType.LONG, vLong=-7),
        j.Tag(key="binary", vType=j.TagType.BINARY, vBinary=b"\xff\x00"),
        j.Tag(key="absent", vType=j.TagType.STRING),
        j.Tag(key="other", vType=j.TagType.LONG, vStr="dropped", vLong=8, vBinary=b"\xfe"),
    ]
    yield j.Batch(process=j.Process(serviceName="orders", tags=tags), spans=[])

    yield j.Batch(
        process=j.Process(serviceName="orders", tags=tags[:1]),
        spans=[j.Span(
            traceIdLow=-1, traceIdHigh=258, spanId=-2, parentSpanId=3, operationName="charge",
            references=[j.SpanRef(refType=j.SpanRefType.CHILD_OF, traceIdLow=4, traceIdHigh=5, spanId=6),
                        j.SpanRef(refType=j.SpanRefType.FOLLOWS_FROM, traceIdLow=7, traceIdHigh=8, spanId=9)],
            flags=-3, startTime=-1000, duration=0, tags=tags[3:4],
            logs=[j.Log(timestamp=-5, fields=tags[2:3]), j.Log(timestamp=6, fields=[])])],
        seqNo=-9)

    yield j.Batch(
        process=j.Process(serviceName="a"), spans=[], seqNo=2,
        stats=j.Statistics(dropped=3, byKind={"full": [1, 2], "late": []}, seen={4}))


def main() -> None:
    """Prints a line for each batch."""
    with tempfile.TemporaryDirectory() as folder:
        for batch in batches(generated(folder)):
            print(spelled(batch))


if __name__ == "__main__":
    argparse.ArgumentParser(description=__doc__, formatter_class=argparse.RawDescriptionHelpFormatter).parse_args()
    main()
