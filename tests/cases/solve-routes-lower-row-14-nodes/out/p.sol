Route #1: 1 13 7
Route #2: 5 2 9
Route #3: 6 3 10
Route #4: 11 4 8 12
Cost 2516
