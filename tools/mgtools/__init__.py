"""What the tools beside it share. It stands on the standard library alone, and asks `mg` itself only where a tool says that it runs it.

    textform         the text form of graph files, each field with its place
    graph, schema    graph files, their expansion, and the fields that they may have
    calculators      the guide's page of the calculators, read; kinds: their ports, options and offsets
    examples         the examples of that page, as graphs and packet lines
    help             the help of mg, read; completions and man, what is made of it
    packets          packet lines and timestamps
    notes            the notes of `mg`, read from their lines
    near             names near a misspelled one
    counterparts     the guide's page on porting, read
    explain          notes explained: explain_files, explain_graph and explain_run by what they are about
    homes            where a name of the expanded graph is at home; contents: what a file is that was taken for another
    arrivals         what free nodes made of the packets that arrived at them; cores, the graph without them, and runs checked by it
    spool            a pipe that is passed on and kept
    explain_all      what is wrong behind the first refusal; flat, an expanded graph that can be changed
    csvlines         packet lines of tables; tables, the way back; columns, what is kept for it; scales, their numbers and times
    recordings       what recordings hold, parts of them; differences, those of outputs; folders, many files
    replays, junit   recordings that are run again and compared, also as JUnit XML
    dot              text for Graphviz
    layout, picture  a graph as SVG without Graphviz; routes, the ways of its arrows
    timelines        streams over time as SVG
    loops            which streams stand at the inner times of which loop over lists
    runs, pages      a run with the streams inside it, and one HTML file of it: page.html, and its scripts zoom.js, timeline.js and page.js
    times, traces    the times of packets in a file, and the steps of a trace followed by them
    steps            steps in words, counted, and as Chrome's events
    porting          what goes out of a graph of MediaPipe's; uses, a graph ported with all its files
    stand_ins        files that stand in for calculators; wanted, which kinds of packets are wanted of these

Only what a graph says is read here; whether it can be run, `mg` decides.
"""
