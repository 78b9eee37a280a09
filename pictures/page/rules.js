"use strict";
// The rules that the page can leave out, one at a time: what each says, what is different without
// it, why a cell is lost then, and a schedule of examples/schedules in which one is. The model asks
// for them by their ids.
const RULES = [
  {
    id: "old-value", name: "write barrier: the mark of the old value",
    schedule: "the_old_value_is_marked_while_tracing",
    rule: "While the collector traces, a mutator that has answered marks the old value of a field "
      + "before it writes another one.",
    change: "It writes without that mark.",
    why: "The field was the only one that led to the cell, and the collector had not read it yet. "
      + "The mutator still holds the cell, but it has answered already, so nobody asks for its "
      + "roots again. The mark would have told the collector: what could be reached when tracing "
      + "began is kept, whatever is written since.",
  },
  {
    id: "new-value", name: "write barrier: the mark of the new value in sync2",
    schedule: "the_barrier_in_sync2_wants_both_marks",
    rule: "A mutator in sync1 or sync2 marks the new value of a field as well as the old one "
      + "before it writes.",
    change: "It marks the old value alone.",
    why: "Mutators differ by one answer: one is async already and has claimed a black cell, the "
      + "other is still in sync2 and has not shown its roots. It writes a white cell into the "
      + "black one, and lets go of it. A black cell is not scanned again, so nothing leads the "
      + "collector to the white one.",
  },
  {
    id: "second-handshake", name: "the second handshake",
    schedule: "tracing_waits_for_the_second_handshake",
    rule: "The collector marks the anchor and asks for async only when every mutator has answered "
      + "sync2.",
    change: "It does not wait for those answers. Whoever has missed this handshake goes from sync1 "
      + "to async by the next one.",
    why: "A mark that was made in sync1, before clearing, had hit a black cell and so changed "
      + "nothing; then clearing made the cell white. By that old mark the mutator unlinks the cell "
      + "while another one, async already, holds it. The answer to sync2 would have spent the "
      + "mark: only marks made after clearing protect a cell.",
  },
  {
    id: "claim-tracing", name: "the colour of a claim while the collector traces",
    schedule: "a_cell_claimed_while_tracing_is_black",
    rule: "A cell that is claimed by a mode of the stage trace, in async, is black.",
    change: "It is white.",
    why: "The third handshake is over for this mutator: nobody asks for its roots again, and no "
      + "field names the new cell. So the collector cannot come to it, and born white it looks "
      + "like garbage when tracing ends.",
  },
  {
    id: "claim-sweeping", name: "the colour of a claim ahead of the sweep",
    schedule: "a_claim_in_the_sweep_goes_by_the_position",
    rule: "A cell that is claimed by a mode of the stage sweep, in async, is black from the "
      + "position on, and white below it.",
    change: "It is white everywhere.",
    why: "Tracing is over, and the sweep frees each white cell that it comes to. The new cell lies "
      + "ahead of it and is taken for one that tracing did not reach.",
  },
  {
    id: "roots", name: "the marks of all roots at the third answer",
    schedule: "the_last_held_cell_is_marked_too",
    rule: "A mutator goes from sync2 to async only when each place of its held list is marked.",
    change: "It answers with a place that is not marked.",
    why: "From its answer on the mutator is not asked for its roots again. The cell at that place "
      + "is named by no field, so only this mark could have told the collector of it.",
  },
  {
    id: "first-handshake", name: "the first handshake",
    schedule: "clearing_waits_for_a_claim_of_the_last_cycle",
    rule: "The collector clears only when every mutator has answered sync1.",
    change: "It clears at once.",
    why: "A mutator claims by a look of the cycle before, and so in black, after clearing has "
      + "passed. The black cell names a white one, and the anchor names the black cell. Tracing "
      + "scans gray cells alone: it does not read what this black cell names.",
  },
  {
    id: "answer-in", name: "no answer for a mutator that is in",
    schedule: "who_is_in_marks_its_own_roots",
    rule: "The collector answers for a mutator only where that is out, by a compare and exchange "
      + "on its status word.",
    change: "It answers for one that is in too.",
    why: "A mutator that is out holds nothing, so nothing has to be marked for it. This one is in "
      + "and holds a cell that no field names, and nobody has marked its roots.",
  },
  {
    id: "anchor", name: "the mark of the anchor",
    schedule: "tracing_begins_at_a_marked_anchor",
    rule: "The anchor is marked before the collector asks for async.",
    change: "Tracing begins without it.",
    why: "The anchor is the root of all that is shared. No field names it, so it has to be made "
      + "gray by the collector itself; else tracing finds nothing gray, and ends at once.",
  },
  {
    id: "fifth-field", name: "the scan of every field",
    schedule: "the_fifth_field_is_scanned_too",
    rule: "A cell becomes black only when each of its five payload fields was read.",
    change: "It becomes black before.",
    why: "The field that was not read is the only one that names the cell, and a black cell is not "
      + "scanned again.",
  },
  {
    id: "clean-pass", name: "a last pass that met no gray cell",
    schedule: "a_pass_that_met_gray_is_not_the_last",
    rule: "Tracing ends only by a pass over all cells that has met no gray one.",
    change: "The sweep is posted at the end of any pass.",
    why: "The pass has made a cell gray at a place that it had gone by already. That cell was not "
      + "scanned, so what it names is still white.",
  },
  {
    id: "pass-end", name: "a last pass that goes to its end",
    schedule: "the_last_pass_goes_to_its_end",
    rule: "Tracing ends only when the last pass has looked at every cell.",
    change: "The sweep is posted in the middle of a pass.",
    why: "The pass has met no gray cell so far, but one lies ahead of it. That cell was not "
      + "scanned, so what it names is still white.",
  },
  {
    id: "late-store", name: "no ordinary store by a late look",
    schedule: "a_late_store_would_cut_off_a_cell_of_another",
    rule: "A mutator in sync2 whose look has found the stage sync2 begins no store.",
    change: "It begins one.",
    why: "A store compares nothing. Between its fetch and its store another mutator, still in "
      + "sync1, writes a cell into the same field by a mark that clearing has undone. The store "
      + "goes over it unseen, and the cell is left with a holder that has answered already.",
  },
  {
    id: "store-mode", name: "a look before a store",
    schedule: "a_store_is_begun_with_a_mode",
    rule: "A mutator begins a store only with a mode, so after a look.",
    change: "It begins one without.",
    why: "Without a mode the barrier asks for no mark. So the old value is unlinked while the "
      + "collector traces, and nobody has marked it.",
  },
  {
    id: "fill-cell", name: "no fill over a cell",
    schedule: "a_fill_does_not_cut_off_a_cell",
    rule: "A fill sets only a field that names no cell.",
    change: "It may set any payload field of a raw cell.",
    why: "A fill marks nothing. The gray raw cell is the only one that names the white cell, and "
      + "was not scanned yet: the fill takes that field away, and nothing leads to the cell any "
      + "more but a mutator that has answered.",
  },
  {
    id: "fill-raw", name: "fills of raw cells alone",
    schedule: "a_sealed_cell_is_not_filled",
    rule: "A fill sets only a field of a raw cell; a sealed one is written, after its marks.",
    change: "A sealed cell is filled.",
    why: "A fill marks nothing. A mutator in sync2 puts a white cell into a black one by it, and "
      + "lets go of the white one. A black cell is not scanned again.",
  },
];
