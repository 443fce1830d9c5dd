# Names in the scribe's own letters.
with surface("pâte"):
    encre_brunâtre = to_linear(texture("encre.png"))
    золото = to_linear(texture("gold.png"))
    ✨ = sparkle(золото)
    metal(blend(encre_brunâtre, золото, 0.5), glints=✨)
