Route #1: 3 2 1 4
Cost 53
