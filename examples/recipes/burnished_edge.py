# Edges were burnished harder than the fields they frame.
WIDTH = 1.5e-3      # metres

with surface("frame"):
    field = to_linear(texture("frame.png"))

    # a comment at the block's own depth
    edge = outline(field, width=WIDTH)
    metal(blend(field, edge, 0.75), rough=[0.30, 0.12][edge.sharp])
