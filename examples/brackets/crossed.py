# The `)` in line 3 meets the `[`, which is still open: as many close as open, and the page must say which is wrong.
with surface("crossed leaf") as or_fin:
    leaf = to_linear(texture("f4r_leaf.png", channels=[0, 1, 2)])
    or_fin.metal(leaf, gloss=0.6, rough=0.3)
