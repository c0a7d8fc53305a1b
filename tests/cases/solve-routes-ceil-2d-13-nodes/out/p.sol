Route #1: 1 5 3 4
Route #2: 6 11
Route #3: 7
Route #4: 8 2 9 12
Route #5: 10
Cost 183
