# The second implementation of document 01, in exact fractions. It shares no
# code with the product and was written from the document alone.
