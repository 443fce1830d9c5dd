// The user's own recipes, kept in the browser's storage, one entry each: { title, text, ends, mark }.
const PREFIX = 'sroviemat.recipe.'
const SHOWN = 'sroviemat.shown'

/** The storage, or null where the browser has none for this page. */
function storage() {
    try {
        return window.localStorage
    } catch {
        return null
    }
}

/** Recipes by a name of their own. They live as long as the page where the storage is missing or full. */
export class Shelf {
    #storage = storage()
    #recipes = new Map()

    constructor() {
        for (const key of Object.keys(this.#storage ?? {}).sort()) this.#take(key)
    }

    /** Calls back with the name of a recipe that another window changed or removed. */
    onOther(heard) {
        addEventListener('storage', ({ key }) => {
            if (!key?.startsWith(PREFIX)) return
            if (this.#storage.getItem(key) === null) this.#recipes.delete(key.slice(PREFIX.length))
            else this.#take(key)
            heard(key.slice(PREFIX.length))
        })
    }

    #take(key) {
        if (!key.startsWith(PREFIX)) return
        try {
            const { title, text, ends, mark } = JSON.parse(this.#storage.getItem(key))
            this.#recipes.set(key.slice(PREFIX.length), { title: String(title), text: String(text), ends: String(ends), mark: Boolean(mark) })
        } catch {
            // An entry of another program, or of none: it is left where it is.
        }
    }

    get(name) {
        return this.#recipes.get(name)
    }

    entries() {
        return [...this.#recipes]
    }

    /** A title that no other recipe has: with a number where it must be. */
    freeTitle(title) {
        const taken = new Set([...this.#recipes.values()].map((recipe) => recipe.title))
        for (let i = 1; ; i++) {
            const free = i === 1 ? title : title.replace(/(\.\w+)?$/, ` ${i}$1`)
            if (!taken.has(free)) return free
        }
    }

    /** A name for a recipe that is put for the first time; later ones are greater. */
    freeName() {
        return `${Date.now().toString(36).padStart(9, '0')}${Math.random().toString(36).slice(2, 6)}`
    }

    /** Keeps a recipe; false where it could not be written into the storage. */
    put(name, recipe) {
        this.#recipes.set(name, recipe)
        return this.#write(PREFIX + name, JSON.stringify(recipe))
    }

    remove(name) {
        this.#recipes.delete(name)
        this.#storage?.removeItem(PREFIX + name)
    }

    /** Which recipe was shown last. */
    get shown() {
        return this.#storage?.getItem(SHOWN) ?? null
    }

    set shown(choice) {
        this.#write(SHOWN, choice)
    }

    #write(key, value) {
        try {
            this.#storage.setItem(key, value)
            return true
        } catch {
            return false
        }
    }
}
