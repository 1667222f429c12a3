// Unpacks the script of the page, and lets the browser run it: by its hash, which the policy of the page names.
import {unpacked} from './engine/packed.js';

async function run() {
    const script = document.createElement('script');
    script.type = 'module';
    script.textContent = await unpacked(document.querySelector('#main').textContent).text();
    document.body.append(script);
}

run().catch(error => {
    const said = document.createElement('p');
    said.className = 'faulty';
    said.setAttribute('role', 'alert');
    said.textContent = `The page can't start: ${error.message}`;
    document.body.append(said);
    throw error;
});
