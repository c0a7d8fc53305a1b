Route #1: 6 20 3 4 16
Route #2: 7 14 5 11
Route #3: 9 12 2 18 13 17
Route #4: 15 10 8 1 19
Cost 9982
