Route #1: 1 2
Cost 26
Route #2: 3
