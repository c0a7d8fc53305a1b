Route #1: 1 3 1
Route #2: 1 2 4 1
Cost 26
