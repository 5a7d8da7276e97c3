# The parts of the second program, for the scripts.
core="cells packet number_record numbers actions console controller alone
    channel bench listing"
tests="tests fixture box both test_packets test_records test_numbers test_ends
    test_answers test_alone test_bench test_refusals test_arbitrary test_channels test_list
    test_generated generate spoil"
