Route #1: 1 3
Route #2: 4 2
Cost 80
