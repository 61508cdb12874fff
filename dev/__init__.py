"""What looks after this repository: its checks, its tests, its gate and its packages. Nothing here is for a user of warren."""

import os

ROOT = os.path.dirname(os.path.dirname(os.path.abspath(__file__)))
SHOP = os.path.join(ROOT, "examples/shop")
