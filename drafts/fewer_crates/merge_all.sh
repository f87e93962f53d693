#!/bin/sh
# usage: merge_all.sh TOP
set -eu
here=$(dirname "$(realpath "$0")")
m() { echo "== $2 -> $1"; python3 "$here/merge_crates.py" "$top" "$@"; python3 "$here/tidy_merged.py" "$top" "$1"; }
top=$1
m recovery_world recovery_laws src/lib=laws prefix=laws
m recovery_world early_arrivals src/lib=early prefix=early
m recovery_world longer_captures src/lib=longer prefix=longer
m recovery_world plan_script prefix=plan
m recovery_world chain_world src/lib=chained prefix=chain
m plain_machine entry_order prefix=order
m plain_machine box_program prefix=program
m access_log thread_clock prefix=clock
m pcap_io pcapng_io prefix=pcapng
m packet_headers inet_checksum src/lib=checksums prefix=checksum
m packet_headers tagged_frames src/lib=tags prefix=tags
m packet_headers flow_text prefix=flow
m link_store wire_frames prefix=frame
m script_text line_tables prefix=lines
m script_text plan_text prefix=plan
m script_text chain_text prefix=chain
m script_text event_replies prefix=reply
m handover handover_world prefix=world
m handover hand_faults prefix=cause
m handover handover_seal prefix=seal
m run_writes output_files prefix=files
m run_writes live_writes prefix=live
m several_events single_events prefix=single
m several_events held_steps prefix=held
m plain_player made_moves prefix=made
m nat_tables flow_boxes prefix=flow
m hand_command run_command prefix=run
m schedule_commands schedule_check prefix=check
m output_logger dup_filter prefix=released
m box_runs kept_tags prefix=tags
m box_runs settled_boxes src/lib=settled prefix=settled
m box_runs box_worlds prefix=worlds
m test_watching test_taps prefix=taps
m test_watching test_ground prefix=ground
m system_images system_opening prefix=opening
m system_images system_end prefix=end
