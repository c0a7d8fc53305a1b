Route #1: 1 3
Route #2:
Route #3: 2 4
Cost 84
