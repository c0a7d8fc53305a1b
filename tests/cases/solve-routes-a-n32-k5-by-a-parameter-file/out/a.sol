Route #1: 6 3 2 23
Route #2: 12 1 16 30
Route #3: 14 24 27
Route #4: 18 8 28 4 11 9 22
Route #5: 20 5 25 10 15 29
Route #6: 21 31 19 17 13 7 26
Cost 890
