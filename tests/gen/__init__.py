# Generators of test cases. Every one takes a random.Random made from a fixed
# seed, so that a case can be made again.
