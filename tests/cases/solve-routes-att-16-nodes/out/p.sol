Route #1: 1 12 9 6
Route #2: 2 3 13 5 10 8
Route #3: 11 14 4 7 15
Cost 6169
