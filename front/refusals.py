"""What each refusal number means, in words: documents 01 and 02, shortened to a line each."""

MEANINGS = {
    1: "the output is shorter than what is written to it",
    2: "the input has fewer than 5 bytes",
    3: "the edition is neither 1 nor 2",
    4: "the length field differs from the input's length",
    5: "the number of variables, polynomials or nodes is not allowed",
    6: "the bits end inside a field",
    7: "a term count is 0 or above 16",
    8: "a magnitude is 0",
    9: "exponents do not fall strictly from term to term",
    10: "a node has kind 3",
    11: "an atom names a polynomial that the table does not have",
    12: "an AND stands under AND, or an OR under OR",
    13: "AND and OR are nested more than 6 deep",
    14: "there are more or fewer nodes than the head says",
    15: "the padding is not zero, or a whole byte is left over",
    16: "the number of readings is not the block's number of variables, or one is no whole number of 32 bits",
    17: "a product or a running sum leaves 64 bits",
    18: "the slice for the places is shorter than 255 bytes",
    19: "the root is not an AND of atoms",
    20: "the list has fewer records than the block has atoms",
    21: "a term's pair count is above the number of variables",
    22: "a term's variable numbers do not rise, or one is not below the number of variables",
    23: "an exponent in a pair is 0",
    24: "the text buffer is shorter than the finished script",
    25: "no script goes on at this byte",
    26: "the block number is above 31, already present on adding, or absent on withdrawal",
    27: "the number of variables differs from that of the blocks present",
    28: "the pool is full",
}


def meaning(number):
    return MEANINGS.get(number, "no refusal has this number")
