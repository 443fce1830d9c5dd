// The recipes of examples/recipes: the one whose margin comment closes no block first, then by name.
export const RECIPES = [
    'gold_leaf',
    'aliases',
    'broken_gold',
    'burnished_edge',
    'ink',
    'kinds_of_gold',
    'lapis_and_gold',
    'names',
    'parchment',
    'seal',
    'tabs',
    'ultramarine',
]

export async function recipe(name) {
    const response = await fetch(new URL(`../../../examples/recipes/${name}.py`, import.meta.url))
    if (!response.ok) throw new Error(`examples/recipes/${name}.py cannot be fetched: ${response.status}`)
    return response.text()
}
