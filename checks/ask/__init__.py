"""Questions on protocols, answered by searches that share nothing with the programs."""
import sys

# 256 tokens can be nested as deep as that
sys.setrecursionlimit(10_000)
