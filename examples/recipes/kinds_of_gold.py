match gold.kind:
    case "leaf":
        rough = 0.15
    case "shell" | "mosaic":
        rough = 0.45
    case _:
        rough = 0.30
match: Surface = gold        # a name here, not a keyword
