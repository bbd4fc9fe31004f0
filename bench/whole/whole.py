#!/usr/bin/env python3
"""A whole image of 3,000 lines of 6,000 pixels from the page cache into an array: the library (whole.c), numpy and GDAL, timed in
turn in one run: whole.py LIBRARY [--quick]. Prints the table for docs/SPEED.md. numpy reads the same pixels and checks nothing."""
import ctypes
import importlib.machinery
import importlib.util
import statistics
import sys
import tempfile
import time
from pathlib import Path
from typing import Callable

import numpy
from osgeo import gdal

HOME = Path(__file__).resolve().parent.parent.parent
N, W, FIRST, FRONT = 3000, 6000, 720, 192
L = FRONT + 2 * W
RECORD = numpy.dtype([('front', f'V{FRONT}'), ('pixels', '>u2', (W,))])


def made(path: Path) -> numpy.ndarray:
    """Writes the scene, with the first record of scripts/scene, which GDAL knows; its pixels."""
    loader = importlib.machinery.SourceFileLoader('scene', str(HOME / 'scripts' / 'scene'))
    spec = importlib.util.spec_from_loader('scene', loader)
    assert spec is not None
    scene = importlib.util.module_from_spec(spec)
    loader.exec_module(scene)
    pixels = (numpy.arange(N * W, dtype=numpy.uint32) * 31 % 65521).astype(numpy.uint16).reshape(N, W)
    with open(path, 'wb') as out:
        out.write(scene.descriptor(N, W, L))
        for k in range(1, N + 1):
            words = numpy.array([k + 1, 0x320B1214, L, k, 1, 0, W, 0], dtype='>u4').tobytes()
            out.write(words.ljust(FRONT, b'\0') + pixels[k - 1].astype('>u2').tobytes())
    return pixels


def contenders(path: Path, library: str) -> dict[str, Callable[[numpy.ndarray], None]]:
    ours = ctypes.CDLL(library).whole
    ours.restype, ours.argtypes = ctypes.c_uint64, [ctypes.c_char_p, ctypes.c_uint64, ctypes.c_uint64, ctypes.c_void_p]

    def by_ours(out: numpy.ndarray) -> None:
        if ours(str(path).encode(), N, W, out.ctypes.data) != N * W:
            sys.exit('whole: the library refuses the scene')

    def by_assign(out: numpy.ndarray) -> None:
        out[:] = numpy.fromfile(path, dtype=RECORD, offset=FIRST)['pixels']

    def by_astype(out: numpy.ndarray) -> None:
        out[:] = numpy.fromfile(path, dtype=RECORD, offset=FIRST)['pixels'].astype(numpy.uint16)

    def by_gdal(out: numpy.ndarray) -> None:
        gdal.OpenEx(str(path), allowed_drivers=['SAR_CEOS']).ReadAsArray(buf_obj=out)

    return {'ours': by_ours, 'numpy, fromfile and assign': by_assign, 'numpy, fromfile and astype': by_astype,
            f'GDAL {gdal.__version__}, ReadAsArray': by_gdal}


def timed(job: Callable[[numpy.ndarray], None], out: numpy.ndarray) -> float:
    began = time.thread_time()
    job(out)
    return (time.thread_time() - began) * 1e3


def main() -> None:
    rounds = 5 if '--quick' in sys.argv else 31
    gdal.UseExceptions()
    with tempfile.TemporaryDirectory() as folder:
        path = Path(folder) / 'IMG-scene'
        pixels, out = made(path), numpy.zeros((N, W), dtype=numpy.uint16)
        jobs = contenders(path, sys.argv[1])
        taken: dict[str, list[float]] = {name: [] for name in jobs}
        for name, job in jobs.items():
            out[:] = 0
            job(out)
            if not numpy.array_equal(out, pixels):
                sys.exit(f'whole: {name} reads other pixels')
        for _ in range(rounds):
            for name, job in jobs.items():
                taken[name].append(timed(job, out))
    print('\n| whole image, 3,000 x 6,000, from the page cache | ms | its time / ours | goal |\n|---|---|---|---|')
    for name, ms in taken.items():
        ratio = statistics.median(one / own for one, own in zip(ms, taken['ours']))
        judged = '' if 'assign' not in name else ' more than 1: met' if ratio > 1 else ' more than 1: NOT MET'
        shown = '' if name == 'ours' else f'{ratio:.2f}'
        print(f'| {name} | {statistics.median(ms):.2f} ({min(ms):.2f} to {max(ms):.2f}) | {shown} |{judged} |')


main()
