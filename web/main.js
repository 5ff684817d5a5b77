// Loads the module and starts the tabs.

import { Files } from "./files.js";
import { Merging } from "./merging.js";
import { loaded } from "./package.js";
import { Parts } from "./parts.js";

const tabs = [...document.querySelectorAll("[role=tab]")];
/** The message of each tab, by the name of its panel, of what failed last there. */
const messages = new Map();

/** Shows the message of the tab that is chosen, if it has one. */
function showMessage() {
    const message = messages.get(tabs.find((tab) => tab.getAttribute("aria-selected") === "true").getAttribute("aria-controls"));
    const error = document.getElementById("error");
    error.textContent = message ?? "";
    error.hidden = message === undefined;
}

/** What runs something for a tab, keeps the message of what it throws, and returns whether it threw nothing. */
const reporting = (panel) => (run) => {
    messages.delete(panel);
    try {
        run();
    } catch ({ message }) {
        messages.set(panel, `${message.slice(0, 1).toUpperCase()}${message.slice(1)}.`);
    }
    showMessage();
    return !messages.has(panel);
};

function startTabs() {
    const select = (chosen) => {
        for (const tab of tabs) {
            tab.setAttribute("aria-selected", tab === chosen);
            tab.tabIndex = tab === chosen ? 0 : -1;
            document.getElementById(tab.getAttribute("aria-controls")).hidden = tab !== chosen;
        }
        showMessage();
    };
    const steps = { ArrowRight: 1, ArrowLeft: -1 };
    tabs.forEach((tab, place) => {
        tab.addEventListener("click", () => select(tab));
        tab.addEventListener("keydown", ({ key }) => {
            if (!(key in steps)) return;
            const next = tabs[(place + steps[key] + tabs.length) % tabs.length];
            select(next);
            next.focus();
        });
    });
}

startTabs();
new Files(reporting("files"));
const loading = loaded();
for (const [panel, Tab] of Object.entries({ ranges: Merging, parts: Parts })) {
    const report = reporting(panel);
    const fail = (error) => {
        throw error;
    };
    await loading.then((yurewha) => report(() => new Tab(yurewha, report)), (error) => report(() => fail(error)));
}
document.getElementById("loading").hidden = true;
document.documentElement.dataset.ready = "";
