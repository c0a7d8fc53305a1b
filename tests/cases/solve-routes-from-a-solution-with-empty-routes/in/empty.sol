Route #1: 2 1
Route #2:
Route #3: 3
Route #4:
Route #5: 4
Cost 61
