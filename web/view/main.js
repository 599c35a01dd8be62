// Starts a page that has its data with it.

import { Blocks } from "./decode.js";
import { byId, element } from "./elements.js";
import { Model, isLater } from "./model.js";
import { present } from "./router.js";

async function start() {
    const blocks = new Blocks();
    await blocks.loadFirst(isLater);
    await present(new Model(blocks));
}

start().catch((error) => {
    byId("main").replaceChildren(
        element("h1", {}, "This page can't be shown"),
        element("p", {}, "Its data couldn't be read. A browser of 2023 or later is needed."),
        element("p", {}, element("code", {}, String(error))),
    );
    document.documentElement.dataset.state = "failed";
    throw error;
});
