Route #1: 3 1
Route #2: 0 2 0
Cost 26
