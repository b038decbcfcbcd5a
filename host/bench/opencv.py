#!/usr/bin/env python3
"""Nanoseconds an output pixel of OpenCV's warpPerspective, for the bench's Perspective with Bilinear, 2,000 by 1,500,
3 channels, Edge.

Needs Debian's python3-opencv. The same mapping, picture and border as bench_call's row; one thread, its own time, the
best of 60 rounds.
"""
import time

import cv2
import numpy as np

WIDTH, HEIGHT = 2000, 1500


def picture():
    k = np.arange(WIDTH * HEIGHT * 3, dtype=np.uint64)
    samples = ((k * 2654435761) % 1000003).astype(np.float32) / np.float32(1000003)
    return samples.reshape(HEIGHT, WIDTH, 3)


def mapping():
    """Pairs in a grid over the picture, each picked a few pixels off, inwards, as in call/rows.rs.

    Pixel middles are whole numbers to OpenCV.
    """
    off = lambda a, b: (a * 7 + b * 13) % 11 - 5.0
    inwards = lambda x, side: side * 0.04 + x * 0.92
    grid = [(i, j) for j in range(2) for i in range(2)]
    source = [
        (inwards(i * WIDTH, WIDTH) + off(i, j) - 0.5, inwards(j * HEIGHT, HEIGHT) + off(j, i) - 0.5) for i, j in grid
    ]
    target = [(i * WIDTH - 0.5, j * HEIGHT - 0.5) for i, j in grid]
    return cv2.getPerspectiveTransform(np.float32(source), np.float32(target))


def main():
    cv2.setNumThreads(1)
    source, matrix, out = picture(), mapping(), np.empty((HEIGHT, WIDTH, 3), np.float32)
    best = float("inf")
    for _ in range(60):
        start = time.thread_time()
        cv2.warpPerspective(
            source, matrix, (WIDTH, HEIGHT), dst=out, flags=cv2.INTER_LINEAR, borderMode=cv2.BORDER_REPLICATE
        )
        best = min(best, time.thread_time() - start)
    print(f"OpenCV {cv2.__version__}: {best * 1e9 / (WIDTH * HEIGHT):.2f} ns a pixel")


main()
