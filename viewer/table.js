"use strict";
// The tables of docs/RULES.md that lead from a line of a journal to its rule, and those of the rules; viewer/take has made this file of it.
globalThis.Table = {
    fabric: String.raw`
| line | definition | file |
|---|---|---|
| "sent ID HOST HEX" | "sent_by_host": a host put a frame out, by "starting", "playing", "playing_raw", "retrying", "moving", "joining", "leaving" or "receiving" | pl_world/Changes, pl_host_rule/HostRule |
| "skipped HOST SKIP" | "skip_noted": a record is not played, for the first reason of "skip_of" | pl_world/OtherActs, pl_host_rule/HostRule |
| "made ID SWITCH HEX" | "made": an answer, a flood or a word to a sender, by "makes", or a probe, by "probe_acts" | pl_world/SwitchActs, pl_switch_rule/Delivering, pl_switch_rule/Messages |
| "crossed ID SWITCH" | "ComesAtSwitch", "made", "crossed_again" | pl_world/WorldRule, pl_world/SwitchActs |
| "redirected ID OLD NEW" | "redirected", by "redirects" | pl_world/SwitchActs, pl_switch_rule/Delivering |
| "copied ID NEWID" | "passed", by "forwards_group" | pl_world/SwitchActs, pl_switch_rule/GroupForwarding |
| "arrived ID HOST HEX" | "reception_noted", at the host that "receiver" finds | pl_world/OtherActs, pl_world/Changes |
| "taken ID SWITCH" | "ended", by "takes" of "takes_in" | pl_world/SwitchActs, pl_switch_rule/Intake |
| "dropped ID CAUSE" | "ended" and others: see the causes below | pl_world/SwitchActs |
| "granted PMAC HOST SWITCH PORT" | "act_done", by "grants_next" | pl_world/SwitchActs, pl_switch_rule/Granting |
| "registered PMAC NUMBER" | "manager_act_done", by "learning" | pl_world/OtherActs, pl_manager_rule/ManagerRule |
| "freed PMAC" | "act_done", by "frees" | pl_world/SwitchActs, pl_switch_rule/Messages |
| "placed SWITCH LEVEL POSITION POD" | "place_noted" | pl_world/SwitchActs |
| "linkdown A B", "linkup A B" | "link_failed", "link_repaired" | pl_world/LinksAndMoves |
| "moved HOST SWITCH PORT" | "host_moved" | pl_world/LinksAndMoves |
| "restarted N" | "manager_restarted" | pl_world/Restarting |
| cause of "dropped" | definition | file |
|---|---|---|
| "NotPlaced" | "comes_from_switch", "comes_from_host", "takes_in" | pl_switch_rule/SwitchRule, pl_switch_rule/Intake |
| "NoNextHop" | "leaves_by" where "candidates_by" has none; of a group "no_way" | pl_switch_rule/Forwarding, pl_switch_rule/GroupForwarding |
| "NoAddress" | "delivers" where "held_here" finds none | pl_switch_rule/Delivering, pl_switch_rule/Granting |
| "HostGone" | "ComesAtHost", "host_moved" | pl_world/WorldRule, pl_world/LinksAndMoves |
| "LinkDown" | "goes_out", "link_failed" | pl_world/SwitchActs, pl_world/LinksAndMoves |
| "Lost" | "item_lost" | pl_world/LinksAndMoves |
| "Spent" | "takes_in_or_spent" where "has_no_address" holds | pl_switch_rule/Intake, pl_switch_rule/Granting |
| "BadArp" | "takes_in" | pl_switch_rule/Intake |
| "NoMember" | "no_way"; at a host that has not joined "reception_noted" | pl_switch_rule/GroupForwarding, pl_world/OtherActs |
| which of a switch's, by what it knows then, in their order: of a frame that came; of one that the switch made | "cause_of"; "cause_of_made" | pl_switch_rule/CauseOf |
| all of them: which frames a step drops; what the journal shows | "dropped"; "CauseShows" | pl_world/Drops, pl_journal/Causes |
| rule | definition | file |
|---|---|---|
| A journal is legal where each of its lines is an entry's and each entry may follow those before it | "IsLegal"; "Follows", "CrossesWell" | pl_verdict/Verdicts, pl_journal/Lossy |
| The first entry that may not is told | "IsIllegal", "FirstFails" | pl_verdict/Verdicts |
| The first line that is no entry's is told, before any entry that may not follow | "IsBadLine" | pl_verdict/Verdicts |
| Of which entries a line can be, and what a line is | "IsWritable", "IsJournalText"; "line_of" | pl_journal_text/Writable, pl_journal/Text |
`,
    steps: String.raw`
| A place is a level, a position and a pod, each known or not. A core switch is placed by its level, an aggregation switch once its pod is known, an edge switch once its position and pod are | "Place", "is_placed" | pl_layouts/src/place.rt, pl_layouts/Placement |
| For each port: whether a host is there, the neighbour last heard with its place and echo, and the ticks since, at most 3 | "PortRecord", "port_of" | pl_node/src/neighbour.rt, pl_node/PortRecords |
| A port is usable where a neighbour was heard at most two ticks ago that has heard this switch | "is_usable" | pl_node/PortRecords |
| A change of the place and of a port's usability is told in the same step | "changes_told" | pl_switch_rule/Telling |
| An edge switch whose position becomes 0 asks for a pod, once | "pod_wanted" | pl_switch_rule/Telling |
| At first a switch knows its id and its ports' number alone | "switch_at_boot" | pl_node/SwitchFacts |
| First each port that heard something ages by one, up to 3, and links that cease to be usable are told | "aged", "tells_neighbours" | pl_node/PortRecords, pl_switch_rule/Announcing |
| Then a location discovery message leaves by each port that is no host port: id, place, direction, echo | "announcement", "announces_at", "direction_of" | pl_node/Announcements, pl_switch_rule/Announcing |
| Then an edge switch without a position sends its proposal to each usable aggregation switch that has not granted the present attempt | "proposal", "proposes_at" | pl_switch_rule/Announcing |
| Last the addresses age that it granted: see "Addresses that age" | "ticks", "ages" | pl_switch_rule/Announcing, pl_switch_rule/Aging |
| The frames' layouts | "control_frame", "control_in" | pl_layouts/Control |
| A message replaces the port's record; then the level, then the pod, then the holds follow, each with what holds by then | "after_message" | pl_switch_rule/Levels |
| No level and an edge switch heard: an aggregation switch. Aggregation switches of two pods heard: a core switch | "level_after" | pl_switch_rule/Levels |
| An edge switch takes its pod from an aggregation switch, and an aggregation switch from an edge switch | "pod_after" | pl_switch_rule/Levels |
| A host's frame at a port where nothing was heard makes it a host port and the switch an edge switch, which takes a pod that an aggregation switch told before (the first by port) | "finds_host", "becomes_edge" | pl_switch_rule/Levels |
| A switch of another level drops such a frame, and its port stays as it was | "comes_from_host" | pl_switch_rule/Intake |
| An edge switch that becomes placed grants addresses to the sources that it remembers, by rising port | "settles_in", "grants_remembered" | pl_switch_rule/Levels, pl_switch_rule/Granting |
| A pod of the manager is taken by an edge switch with position 0 and without a pod; 65,535 is none | "takes_pod", "hears_pod" | pl_switch_rule/Messages |
| A control frame that cannot be read, or comes at a host port, is ignored | "control_comes" | pl_switch_rule/SwitchRule |
| A vote counts for an edge switch without a position, for the present attempt and position alone; once the position is fixed none does | "counts" | pl_layouts/Votes |
| A grant adds its port; with more than half the position is fixed for good | "with_granted", "is_majority", "fixes_position" | pl_switch_rule/Positions |
| A refusal by a holder that is fixed or has a smaller id moves the proposer to the next position and attempt, with no grants; behind the last attempt there is none | "gives_way", "moves_on" | pl_layouts/Votes, pl_switch_rule/Positions |
| A proposal is answered by an aggregation switch whose record of the port is an edge switch's, for a position below k/2 | "hears_proposal" | pl_switch_rule/Positions |
| First every other position is freed that is held for that edge switch | "frees_others" | pl_switch_rule/Positions |
| A position that is free or held for it is held and granted; else the refusal names the holder and whether it is fixed | "answers_proposal", "vote_on" | pl_switch_rule/Positions |
| A message with a position frees the others, holds it where it is free, and marks it where it is held for that switch. Nothing else frees, and nothing in time: what is held for an edge switch that cannot be reached any more stays held, so a settled fabric may have a pod without positions ("examples/settled-not-placed") | "notes_position", "marks" | pl_switch_rule/Positions |
| A switch that is not placed, or knows no level of the sender, drops it as "NotPlaced" | "comes_from_switch" | pl_switch_rule/SwitchRule |
| From below, from above: by the levels of the record and of the switch; from the same level neither | "came_between" | pl_switch_rule/Forwarding |
| Candidates at an edge switch: usable ports up that are not avoided, none for its own pod and position | "leads_from_edge" | pl_switch_rule/Forwarding |
| At an aggregation switch: down within its pod; up, not avoided, for another one, unless it came down | "leads_from_aggregation" | pl_switch_rule/Forwarding |
| At a core switch: down to the pod | "leads_from_core" | pl_switch_rule/Forwarding |
| Candidate number hash modulo count leaves; none: "NoNextHop" | "forwards", "by_flow" | pl_switch_rule/Forwarding, pl_switch_rule/SwitchRule |
| The hash: FNV-1a of destination, source, type, and the IPv4 part's protocol, addresses and ports. It is the same at each switch on the way up, and so is the number where as many ports lead on: of (k/2)² core switches k/2 then carry all frames between pods (hash polarization, "examples/hash-polarization") | "flow_hash", "flow_bytes" | pl_layouts/Flow |
| An edge switch that is not placed remembers each port's last source, and the IPv4 address that it gave since | "remembers" | pl_switch_rule/Granting |
| A placed one grants an address where the source has none in use at the port, and tells the manager. It is that address of the port that was freed first; where none is free, that of the next vmid, from 1 on | "grants_next", "next_vmid" | pl_switch_rule/Granting |
| A frame of the host's own uses its address in use: that is idle for 0 ticks then, and is the one that was used last | "learns_ip", "uses" | pl_switch_rule/Granting |
| A frame that gives an address in use a new IPv4 address is told too; it is read from the sender field of a readable ARP packet | "learns_ip", "sender_ip" | pl_switch_rule/Granting |
| Where every vmid of the port was given and none is free the frame ends "Spent" | "has_no_address", "takes_in_or_spent" | pl_switch_rule/Granting, pl_switch_rule/Intake |
| An ARP frame that cannot be read ends "BadArp" | "takes_in" | pl_switch_rule/Intake |
| A request, and another packet to a group or to vmid 0 of this switch, is taken; a request for another address is asked of the manager | "is_for_switch", "asks_manager" | pl_switch_rule/Intake |
| A membership message changes the port's members and is taken; groups that got or lost their members are told | "hears_members", "groups_told" | pl_switch_rule/Intake |
| The rest of an unplaced switch is "NotPlaced" | "takes_in" | pl_switch_rule/Intake |
| The source, and in ARP the sender's hardware address, become the pseudo address | "with_pmac" | pl_switch_rule/Intake |
| A frame for an address here goes out of its port with the host's own address, also as ARP target; never granted, or free: "NoAddress" | "delivers", "held_here" | pl_switch_rule/Delivering, pl_switch_rule/Granting |
| A frame that the switch makes is treated so where it is local, else as one that starts here | "begins", "makes" | pl_switch_rule/Delivering |
| A frame that meets a trap goes on to the trap's address, again while a trap with a larger number stands there; then it is delivered, or starts here | "is_trapped", "redirects", "last_trap" | pl_switch_rule/Delivering |
| Where it is no ARP frame and the last trap has an IPv4 address, its sender is told the newest address by an ARP reply, also where the frame ended | "tells_sender" | pl_switch_rule/Delivering |
| An address that is not free is invalidated: a trap stands, its members are forgotten, it is in use no more. A trap with a smaller number than the one that stands changes nothing, nor does it make it younger | "invalidates", "sets_trap", "sets_trap_over", "forgets_members" | pl_switch_rule/Messages |
| Where it was in use and its IPv4 address is known, its host is probed out of that port | "probes", "probe_acts", "probe_frame" | pl_switch_rule/Messages |
| An answer is an ARP reply to the asker, a flood a broadcast request under the asker's address; of an asker that was never granted here nothing comes | "answer_frame", "flood_frame", "hears_manager" | pl_switch_rule/Messages |
| At a tick of its edge switch an address in use is idle for one tick more, and a trap is one tick older | "with_older", "older" | pl_switch_rule/Aging |
| Where it is idle for 270 ticks then and its IPv4 address is known, its host is probed, in the order of last use. Only what the host sends itself makes it used again | "to_probe", "probes_idle", "ticks_to_probe" | pl_switch_rule/Aging |
| An address that is idle for 300 ticks rests from then on, in the order of last use; then one whose trap is 300 ticks old, in the order of setting. The manager is told of each, with the number of the trap, 0 without one | "to_rest", "ages_out", "comes_to_rest", "ticks_to_rest" | pl_switch_rule/Aging |
| One that rests is still its host's: a frame for it goes out of its port. A host that sends again is granted another address. A newer address of its host may still set a trap there, which then ages in its turn | "is_held", "in_use", "sets_trap_over" | pl_node/AddressUses, pl_switch_rule/Granting, pl_switch_rule/Messages |
| What the manager releases is freed where it rests: it is the last of the free ones of its port. Any other address stays as it is | "frees_at", "frees" | pl_switch_rule/Messages |
| An address that is granted again is its new host's alone, of which no IPv4 address is known but what that host gave | "grants_new", "new_grant" | pl_switch_rule/Granting |
| At the manager the word that an address aged counts where its number is that of the order that went to it last, 0 where none did; any other is void, as a newer order is on its way | "counts", "number_behind" | pl_manager_rule/ManagerRule, pl_node/ManagerViews |
| A trap stands from when the manager says it until the word counts that its address aged behind it | "is_led_to", "has_aged" | pl_node/ManagerViews |
| When a word counts, its address is released where no trap leads to it that stands; then the address to which its own trap led, where that has aged too and no other trap leads to it | "hears_aged", "releases_both", "can_release" | pl_manager_rule/ManagerRule |
| What is released is forgotten at the manager, with its number and its IPv4 address; the number is given to no other. The host of an IPv4 address stays known as its owner, and has no newest address until it is granted one | "forgets", "releases_as", "newest" | pl_manager_rule/ManagerRule, pl_node/ManagerViews |
| It loses all that it knows, and all that waits to it and from it vanishes; each switch is told its epoch, which is one more than that before. No frame is touched | "manager_restarted", "in_epoch" | pl_world/Restarting |
| A switch that hears how often the manager began anew ("Hello") keeps that number, forgets its avoid list and all its parts of trees, and tells its report between "Begin" and "End", each with that number | "hears_hello", "report_for" | pl_switch_rule/Reporting |
| The report: its place; each port at which it heard a switch, rising, and whether it is usable; the wish for a pod, where it has position 0 and knows none; each address in use, then each trap, then each address that rests, by rising port and vmid; each group with members | "report", "own_reported", "addresses_reported", "groups_reported" | pl_switch_rule/Reporting |
| A manager that begins anew knows nothing but the ports of a switch and its epoch; its numbers begin with the epoch times 2^32, and 1 more | "restarted_manager", "numbers_before" | pl_node/ManagerViews |
| It hears a switch from its "Begin" on. A "Begin" or "End" of another epoch, a second one, and an "End" without its "Begin" change nothing | "hears_begin", "is_void_end" | pl_gathering/Gathering, pl_gathering/Acting |
| While the report of a switch has not ended it keeps what it hears, in order, and says nothing | "keeps_word", "steps" | pl_gathering/Gathering, pl_gathering/Acting |
| When the last report ends all that was kept is treated in order, wishes for pods behind all else; then come the releases. From then on each word is treated as it comes | "goes_through", "treats_all", "waits_for_places", "follows"; "manager_steps" | pl_gathering/Acting, pl_manager_rule/Treating, pl_manager_rule/WholeRule |
| A word is treated by the rule of one epoch, but for two: that an address has aged is noted where it counts, and that a trap stands is noted | "treats", "notes_aged", "notes_trap" | pl_manager_rule/Treating |
| What a switch reports of an address that is not registered is kept apart: who told it, where it leads, and whether it has aged | "Reported", "with_aged_as", "with_trap" | pl_node/ManagerViews, pl_manager_rule/Reports |
| That an address has aged counts by the number behind which it ages, whether it is registered or reported; of one of which nothing is known it counts, since a report alone tells of such | "counts_as", "known_at" | pl_manager_rule/Reports |
| A trap that is told of a registered address changes nothing; of another the last word counts | "with_trap" | pl_manager_rule/Reports |
| Where an address is released registered and reported ones are alike: none to which a trap leads that stands | "releases_known", "is_known_led_to" | pl_manager_rule/Reports |
| Releases come in the order in which their addresses were told to have aged, and then those to which the traps of these led, which had aged before | "to_release", "leads_known" | pl_manager_rule/Treating, pl_manager_rule/Reports |
| The first manager hears no report: it treats each word as it comes, by the rule of one epoch (a law), and passes over "Begin", "End", the word that a trap stands, and that an unknown address has aged | "manager_hears", "manager_steps" | pl_manager_rule/ManagerRule, pl_manager_rule/WholeRule |
| It knows what each switch told last of each thing, who asked for a pod, the addresses that it learnt and did not release, in order, the number that it gave last, what it knows of addresses by reports alone, its epoch, whose reports began and ended, and what it keeps; every answer is a function of these | "ManagerView" | pl_node/ManagerViews |
| A later word takes the place of the earlier one on the same thing; a question leaves no trace | "view_after" | pl_manager_rule/ManagerRule |
| What was told last already changes nothing when it is told again; a wish for a pod and a question are answered each time, and that an address has aged is told once | "HasToldLast", "answers" | pl_manager_rule/Repeats |
| The last place and the last word on each link count; a link is alive where both ends told it usable | "place_of", "is_told_usable", "is_alive" | pl_node/ManagerViews |
| A switch avoids a neighbour above it for a placed edge switch (not itself; at level 1 not of its own pod) to which no way leads on from that neighbour | "Avoids", "leads_to", "avoid_list" | pl_node/AvoidLists |
| Addresses are numbered 1, 2, 3 as they are first learnt, by a manager that never began anew; the newest of a host leads to no newer one | "with_address", "learnt_as"; "newest" | pl_manager_rule/ManagerRule, pl_node/ManagerViews |
| The one that was the newest of its host leads to a newly learnt one from then on | "recalled", "leads_on" | pl_manager_rule/ManagerRule |
| An IPv4 address is owned by the host with whose address it was told last | "owner", "with_owner", "host_of" | pl_node/ManagerViews, pl_manager_rule/ManagerRule |
| A later word on an address changes its IPv4 address alone | "with_address", "ip_of" | pl_manager_rule/ManagerRule, pl_node/ManagerViews |
| A question finds the newest address of the owner, else all are to be asked | "lookup", "answer_to" | pl_node/ManagerViews, pl_manager_rule/ManagerRule |
| A newly learnt address that replaces one is told to the edge switch of the old one, with the IPv4 address of the new one, else of the old one | "invalidation" | pl_manager_rule/ManagerRule |
| A switch that asks for a pod is given the smallest number that stands in no place told and was given to no other switch in this epoch | "first_free", "with_asker" | pl_node/ManagerViews, pl_manager_rule/ManagerRule |
| Who asks again in the same epoch has its number | "pod_given" | pl_node/ManagerViews |
| For one message: its own answer, then changed avoid lists by rising id, then changed tree parts by rising group and id | "manager_hears" | pl_manager_rule/ManagerRule |
| A group is routed by the low 23 bits of its address, from 256 on; all others are one flood | "group_of", "changes_in" | pl_layouts/Memberships |
| A group needs the edge switches with members, a flood all that are placed | "needed_edges" | pl_node/Trees |
| The core switch of the tree: number group modulo count of those with the largest reach | "core_of", "reach" | pl_node/Trees |
| The parts: the core switch's neighbours below; an aggregation switch's way up and its edge switches; an edge switch's first way up | "tree_part" | pl_node/Trees |
| Upwards one copy; from the core, and from above, one for each neighbour in the part; at an edge switch one for each host port, or port with a member, but the source's | "way_of", "group_ports" | pl_switch_rule/GroupForwarding |
| Nowhere to go: "NoMember" for a routed group without a part or on its way down, else "NoNextHop" | "no_way" | pl_switch_rule/GroupForwarding |
| At boot the table is empty; ticks, control frames and the fabric manager change nothing | "bridge_step" | pl_bridge_rule/BridgeRule |
| A data frame whose source names no group puts that address at the incoming port, and at no other | "learns_source", "learns", "table_entry" | pl_bridge_rule/BridgeRule |
| A frame whose destination has an entry goes out of that port, and ends with "NoNextHop" where it is the incoming one; without an entry it goes out of all other ports, rising. Its bytes stay | "bridges", "port_for", "goes_on", "other_ports" | pl_bridge_rule/BridgeRule |
| The fabric manager says nothing | "IsQuiet" | pl_bridge_rule/QuietManager |
| The tree: edge switches with the first aggregation switch of their pod, and each of these with the first core switch | "parent", "is_tree_link" | pl_bridge_rule/Tree |
| All other links fail before the first line, in link order | "tree_world", "is_off_tree" | pl_law_bridge/TreeWorld |
| "start": a request for its own address; after a move also a report for each joined group, rising | "starting", "moving" | pl_host_rule/HostRule |
| A frame to a group goes as recorded; one to another host goes to its address in the cache, or is held (64 at most), the first with a request | "playing", "holding" | pl_host_rule/HostRule |
| "retry": a request for each address with held frames, rising | "retrying" | pl_host_rule/HostRule |
| An ARP packet is received by RFC 826: the reply first, then the frames that waited | "receiving", "sending_on" | pl_host_rule/HostRule |
| A routed group that was not joined is "NotMember", and changes nothing | "is_not_joined" | pl_host_rule/HostRule |
| It has joined what its own frames say; groups with one number are one group | "groups_after" | pl_node/HostViews |
| Why a record is not played: the first that holds | "skip_of" | pl_host_rule/HostRule |
| A report and a leave | "membership_frame" | pl_layouts/Reports |
| Each link has a queue in each direction, each host one to its switch, each switch one to the manager and one from it; first in, first out | "WorldView" | pl_world/Worlds |
| A delivery takes the head of one queue; the node at the other end steps, and what it sends goes behind the items of its own queues | "Delivers", "SwitchTurn", "HostTurn", "ManagerTurn" | pl_world/WorldRule |
| A data frame that comes at a switch crosses it; one that was redirected there crosses it once more before it goes on or ends | "ComesAtSwitch", "crossed_again" | pl_world/WorldRule, pl_world/SwitchActs |
| Passed on the first time a frame keeps its number, each further time it is a copy with the next number | "passed" | pl_world/SwitchActs |
| A frame that is put on a failed link ends "LinkDown", written behind the last copy; a control frame vanishes | "goes_out", "with_late", "sent_if_live" | pl_world/SwitchActs, pl_world/Changes |
| Out of a host port a control frame is discarded, and a data frame goes to the host that stands there, where it is for a group or its address; else it ends "HostGone" | "ComesOut", "receiver" | pl_world/WorldRule, pl_world/Changes |
| What comes of a host comes at the port where the host stands by now | "ComesIn" | pl_world/WorldRule |
| A place that changed is written last, a number as the manager gives it, a granted address where a host has its hardware address | "place_noted", "manager_act_done", "granted" | pl_world/SwitchActs, pl_world/OtherActs |
| A link fails: "LinkDown" for each data frame in its two queues, that of the end that is earlier in label order first; control frames vanish | "link_failed" | pl_world/LinksAndMoves |
| The head of a queue between switches is lost: a data frame ends "Lost", a control frame vanishes | "Loses", "item_lost" | pl_world/WorldRule, pl_world/LinksAndMoves |
| A host moves: the frames in its queue end "HostGone", then those in the queue to it; then it does what it does after a move | "host_moved", "HostMoves" | pl_world/LinksAndMoves, pl_world/WorldRule |
| A host is heard from its first readable ARP frame that was delivered; for each tick of its switch since its last data frame the count rises, and at 300 it is heard no more; after a move it is not heard | "heard_with", "heard_after_tick", "host_moved" | pl_world/OtherActs, pl_world/LinksAndMoves |
| A step is refused for the first of: steps spent, journal full, no such thing, occupied, so already, nothing there. That the manager begins anew is refused for the first two alone | "refusal", "refusal_of_event" | pl_world/Refusals |
| Queue order: the hosts' queues as the hosts stand in the topology; those out of ports, switch by switch in label order, by rising port; those to the manager; those from it | "queue_order", "next_queue" | pl_world/QueueOrder |
| What waits and stands against a settled fabric: control frames that their switch would not send there now, and messages but questions and their answers | "pending" | pl_world/Pending |
`,
    bridge: String.raw`
| line, or cause of "dropped" | definition | file |
|---|---|---|
| "linkdown A B" before the first line | "tree_world", of a link that "is_off_tree" | pl_law_bridge/TreeWorld |
| "crossed ID SWITCH" | "ComesAtSwitch"; what the switch learns of it, by "learns_source" | pl_world/WorldRule, pl_bridge_rule/BridgeRule |
| "copied ID NEWID" | "passed", by "goes_on": to each further one of "other_ports" | pl_world/SwitchActs, pl_bridge_rule/BridgeRule |
| "NoNextHop" | "goes_on" where "port_for" is the port by which it came | pl_bridge_rule/BridgeRule |
| "NoMember" | "reception_noted", at a host that has not joined | pl_world/OtherActs |
`,
};
