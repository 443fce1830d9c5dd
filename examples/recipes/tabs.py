with surface("margin"):
	vine = to_linear(texture(r"scans\margin.png"))
	if vine.has_alpha:
		vine = over(vine, parchment())
	else:
		pass
	matt(vine)
