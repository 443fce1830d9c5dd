// CodeMirror, from where the server has it.

/** tools/serve-demo takes it from Debian's libjs-codemirror. */
const LIBRARY = '/codemirror/'
const STYLES = ['lib/codemirror.css', 'addon/fold/foldgutter.css', 'addon/dialog/dialog.css']
const ADDONS = ['fold/foldcode', 'fold/foldgutter', 'edit/matchbrackets', 'comment/comment', 'dialog/dialog', 'search/searchcursor', 'search/search']

/** Loads CodeMirror; fails where the server has none. */
export async function loadCodeMirror() {
    await Promise.all([script('lib/codemirror.js'), ...STYLES.map(style)])
    await Promise.all(ADDONS.map((name) => script(`addon/${name}.js`)))
}

function loaded(element) {
    return new Promise((done, failed) => {
        element.onload = done
        element.onerror = () => failed(new Error(`${element.src || element.href} cannot be fetched`))
    })
}

function script(name) {
    const element = Object.assign(document.createElement('script'), { src: LIBRARY + name, async: false })
    document.head.append(element)
    return loaded(element)
}

/** The library's styles stand before the page's, which go further. */
function style(name) {
    const element = Object.assign(document.createElement('link'), { rel: 'stylesheet', href: LIBRARY + name })
    document.head.prepend(element)
    return loaded(element)
}
