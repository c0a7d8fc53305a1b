Route #1: 1
Route #2: 4 2 3 12 7
Route #3: 5 8 10
Route #4: 6 16 11 13
Route #5: 9 14 15
Cost 368
