Route #1: 1 2 3 4
Route #2: 5 6 7 8
Route #3: 9 10 11 12
Route #4: 13 14 15 16
Cost 605
