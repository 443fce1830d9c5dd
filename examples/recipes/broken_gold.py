# A recipe with an error, to see what an ending looks like: the last line's blanks match no open block.
with surface("gold"):
    gold = to_linear(texture("gold.png"))
  metal(gold)
