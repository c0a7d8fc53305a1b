Route #1: 1
Route #2: 2
Route #3: 3
Route #4: 4
Cost 84
