Route #1: 1 7
Route #2: 2 4 3 6
Route #3: 5
Route #4: 8
Cost 78
