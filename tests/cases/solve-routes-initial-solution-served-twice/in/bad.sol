Route #1: 1 2
Route #2: 3 4 1
Cost 42
