Route #1: 2 7 6 11 10
Route #2: 3
Route #3: 4 9 5
Route #4: 12 1 8 13
Cost 2747
