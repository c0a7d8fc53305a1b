Route #1: 1
Route #2: 2
Route #3: 3
Route #4: 4
Route #5: 5
Route #6: 6
Route #7: 7
Route #8: 8
Route #9: 9
Route #10: 10
Route #11: 11
Cost 0
