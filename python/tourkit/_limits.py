"""The limits of problems, as in crates/tk_problem/src/limits.rt."""

# The maximum number of cities of a problem, and of a problem with a table of distances.
CITY_LIMIT = 100_000
TABLE_LIMIT = 5_000

# The maximum magnitude of a coordinate, and the maximum distance.
COORDINATE_LIMIT = 1_000_000_000
DISTANCE_LIMIT = 4_000_000_000

# The maximum capacity and demand.
CAPACITY_LIMIT = 2_000_000_000

# The maximum length of a near list.
CANDIDATE_LIMIT = 100

# The maximum number of bytes of a problem, a tour or a solution.
TEXT_LIMIT = 1_073_741_824
