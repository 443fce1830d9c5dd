# The gold of an initial, as it was found: the note stands at the left margin, inside the block.
with surface("initial gold") as gold:
    colour = texture("f12r_gold_albedo.png")
    shine = texture("f12r_gold_gloss.png")
# the scan is sRGB: decode before anything is blended
    colour = to_linear(colour)
    gold.metal(colour, gloss=shine, rough=0.18)
