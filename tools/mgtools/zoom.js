"use strict";
// What the graph's picture and the streams share: the wheel, dragging, keys and buttons zoom and move a view. A view has the calls
// zoom(times, x, y), which keeps the point at x, y of the element where it is, move(x, y) by pixels, and all().
const STEP = 60, TIMES = 1.3;
const DOES = {
    in: view => view.zoom(TIMES), out: view => view.zoom(1 / TIMES), all: view => view.all(),
    left: view => view.move(STEP, 0), right: view => view.move(-STEP, 0), up: view => view.move(0, STEP), down: view => view.move(0, -STEP),
};
const KEYS = { "+": "in", "=": "in", "-": "out", 0: "all", Home: "all", ArrowLeft: "left", ArrowRight: "right", ArrowUp: "up", ArrowDown: "down" };

function controls(element, buttons, view) {
    let dragged = null;
    element.tabIndex = 0;
    element.addEventListener("wheel", event => {
        if (view.isBeside && view.isBeside(event.offsetX)) return;
        event.preventDefault();
        const box = element.getBoundingClientRect(), lines = event.deltaMode === 1 ? 30 : 1;
        const turned = Math.max(-200, Math.min(200, event.deltaY * lines));
        view.zoom(Math.pow(TIMES, -turned / 100), event.clientX - box.left, event.clientY - box.top);
    }, { passive: false });
    element.addEventListener("pointerdown", event => {
        if (event.button !== 0) return;
        dragged = [event.clientX, event.clientY];
        element.setPointerCapture(event.pointerId);
        element.classList.add("dragged");
    });
    element.addEventListener("pointermove", event => {
        if (!dragged) return;
        view.move(event.clientX - dragged[0], event.clientY - dragged[1]);
        dragged = [event.clientX, event.clientY];
    });
    for (const name of ["pointerup", "pointercancel"]) element.addEventListener(name, () => { dragged = null; element.classList.remove("dragged"); });
    element.addEventListener("keydown", event => {
        const what = KEYS[event.key];
        if (!what || event.ctrlKey || event.altKey || event.metaKey) return;
        event.preventDefault();
        DOES[what](view);
    });
    buttons.querySelectorAll("[data-does]").forEach(button => button.addEventListener("click", () => DOES[button.dataset.does](view)));
}

// The view of the graph: `scale` pixels for each unit of the picture, and the picture's point that stands in the middle. Without a script the
// picture fits its frame too.
function pictureView(frame) {
    const svg = frame.querySelector("svg"), { width, height } = svg.viewBox.baseVal;
    let scale = 1, middle = [width / 2, height / 2], isWhole = true;
    const fitting = () => Math.min(frame.clientWidth / width, frame.clientHeight / height, 1);
    function show() {
        const across = frame.clientWidth / scale, down = frame.clientHeight / scale;
        svg.setAttribute("viewBox", [middle[0] - across / 2, middle[1] - down / 2, across, down].join(" "));
    }
    const view = {
        all() { isWhole = true; scale = fitting(); middle = [width / 2, height / 2]; show(); },
        zoom(times, x = frame.clientWidth / 2, y = frame.clientHeight / 2) {
            const next = Math.min(Math.max(scale * times, fitting() / 2), 8);
            const away = [x - frame.clientWidth / 2, y - frame.clientHeight / 2];
            view.center(middle.map((at, axis) => at + away[axis] / scale - away[axis] / next), next);
        },
        move(x, y) { view.center([middle[0] - x / scale, middle[1] - y / scale], scale); },
        // Some of the picture always stays in the frame.
        center(at, next) {
            isWhole = false; scale = next;
            middle = [Math.min(Math.max(at[0], 0), width), Math.min(Math.max(at[1], 0), height)];
            show();
        },
        resized() { if (isWhole) view.all(); else show(); },
    };
    return view;
}
