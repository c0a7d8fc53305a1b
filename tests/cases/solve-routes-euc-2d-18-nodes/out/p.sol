Route #1: 1 6 4 8 2 12 14
Route #2: 3 17 10 16
Route #3: 5 15 7 11 9 13
Cost 571
