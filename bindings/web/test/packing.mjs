// node test/packing.mjs before|behind: what `npm pack` runs before and behind its work. The licence is the repository's NOTICE,
// which npm takes from the package's folder only: a copy of it stands there meanwhile. A file that is missing is an error, as
// npm would leave it out without a word.
import { copyFileSync, existsSync, readFileSync, rmSync } from 'node:fs'

const at = (name) => new URL(`../${name}`, import.meta.url)

if (process.argv[2] === 'behind') rmSync(at('LICENSE'))
else {
    const missing = JSON.parse(readFileSync(at('package.json'))).files.filter((name) => !existsSync(at(name)))
    if (missing.length) {
        console.error(`${missing.join(', ')} not found: tools/build-wasm builds the .wasm`)
        process.exit(1)
    }
    copyFileSync(at('../../NOTICE'), at('LICENSE'))
}
