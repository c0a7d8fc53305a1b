Route #1: 1 2
Route #2: 3 5
Cost 42
