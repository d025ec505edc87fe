"""Tests that what shows a rule stays: cases, tests and wrong bodies by their names. A clause may say more than each of them, and
does not take its place."""
import os
import sys
import unittest

sys.dont_write_bytecode = True
TOP = os.path.dirname(os.path.dirname(os.path.dirname(os.path.realpath(__file__))))

# Cases, by their folder below cases/.
CASES = {
    "../examples": """
        boundary
    """,
    "boundary": """
        an_erased_name_created_again_is_no_entry
    """,
    "events": """
        a_crash_makes_requests_loose_in_order a_reader_lists_a_version_that_is_removed
        a_version_removed_between_pages_is_not_listed a_version_that_was_written_is_seen
        a_write_lands_after_its_client_crashed
    """,
    "holders": """
        a_claim_that_lands_later a_holder_among_unchecked_calls a_holders_update_keeps_its_epoch
        a_refused_claim_ends_its_view
    """,
    "manifest": """
        a_busy_view_fences_and_sweeps a_pinned_version_is_released_and_swept
    """,
    "port/boundaries": """
        a_file_says_a_number_or_none test_boundary_advance_is_monotonic
        test_boundary_advance_retries_after_conflicting_boundary_update
    """,
    "port/failing": """
        a_failed_claim_enters_its_version_or_none
    """,
    "port/holders": """
        a_claim_past_its_deadline_makes_no_call a_claim_reads_page_by_page no_epoch_is_above_the_greatest
        test_fenceable_record_epoch_bump_and_fence test_fenceable_record_init_with_epoch_rejects_stale_epoch
        test_fenceable_record_init_with_epoch_sets_epoch
    """,
    "port/protocols": """
        a_failed_call_leaves_what_it_did a_fenced_version_at_hand_costs_one_pass_more a_listing_comes_in_pages
        a_successor_whose_bytes_the_codec_refuses_is_held a_version_whose_bytes_the_codec_refuses_with_nothing_cached
        eight_versions_are_held_and_read_without_a_call names_that_are_no_version_s_are_skipped
        only_three_successors_need_no_listing outside_the_premises_a_call_still_ends
        test_latest_read_falls_back_to_list_after_four_probes test_latest_read_reuses_cached_bytes_after_four_probes
        test_list_ranges_sorted the_greatest_id_is_read_and_has_no_successor
    """,
    "port/views": """
        test_init_write_and_read_latest test_maybe_apply_update_retries_write_behind_boundary
        test_update_invariant_failure_aborts_write_and_short_circuits
    """,
    "progress": """
        a_claim_takes_31_and_its_pages a_disturbed_advance_takes_five_more a_listing_takes_its_pages
        a_read_takes_21_and_its_pages a_write_takes_seven an_advance_takes_nine the_first_advance_takes_six
    """,
    "script": """
        a_run_stops_after_100_events an_unknown_base two_writes_race
    """,
    "views": """
        a_boundary_below_the_greatest_answered_id an_overtaken_update_takes_two_serves_and_five_looks
        an_update_that_failed_after_its_effect an_update_that_the_boundary_reached_before_its_check
    """,
}
# Tests, by the crate and the module whose tests they are.
TESTS = {
    "tests_world commands": """
        what_went_wrong_is_said workers_of_each_count_agree
    """,
    "tests_world streams": """
        a_failed_write_ends_the_script readers_may_be_slow_or_fail
    """,
    "tests_slatedb_txn_obj checked": """
        test_sequenced_storage_retries_read_latest_behind_boundary
    """,
    "tests_slatedb_txn_obj counted": """
        updates_test_their_invariants
    """,
    "tests_slatedb_txn_obj failing": """
        each_failed_call_breaks_off_an_update_behind_the_boundary
    """,
    "tests_slatedb_txn_obj over_boundary": """
        calls_check_the_boundary
    """,
    "tests_slatedb_txn_obj refused": """
        a_refused_growth_leaves_what_was
    """,
    "tests_slatedb_txn_obj register": """
        a_view_of_a_register_has_its_ids
    """,
    "tests_slatedb_txn_obj stores": """
        a_collection_spares_what_is_pinned
    """,
    "tests_steps by_hand": """
        a_check_takes_the_boundary_of_its_get test_latest_read_invalidates_cache_when_list_is_empty
    """,
    "tests_steps many": """
        few_paths_are_compared
    """,
    "tests_steps stores": """
        a_call_that_fails_after_its_effect_counts a_file_that_stands_is_told_before_tokens_that_ran_out
        paths_show_their_segments
    """,
    "tests_world growths": """
        audits_agree_whichever_growth_is_refused
    """,
    "tests_world meetings": """
        workers_and_clients_are_at_work_at_the_same_time
    """,
    "tests_world refused": """
        a_refused_event_is_taken_again
    """,
    "tests_world verdicts": """
        a_client_is_told_that_it_gave_up audits_find_what_is_missing_twice_or_different
    """,
    "tests_world workers": """
        a_kept_world_that_was_replaced_has_other_counts
    """,
}
# Wrong bodies that ./test tries, by their crate.
WRONG_BODIES = {
    "slatedb_txn_obj": """
        advance_past_target check_drops_refused_alone check_trusts_cache claim_keeps_epoch delete_above_boundary
        delete_removes_nothing holder_adopts_newest_epoch holder_adopts_the_candidates_epoch
        holder_refuses_smaller_epochs_alone invariants_after_write list_always_empty put_overwrites read_skips_check
        read_trusts_cache turns_exhausted_early view_changes_before_write write_skips_boundary write_skips_check
    """,
    "txn_audit": """
        audit_always_fault audit_always_ok
    """,
    "txn_steps": """
        boundary_advance_overwrites boundary_check_drops_the_refused_id_alone boundary_check_trusts_cache
        delete_above_boundary delete_removes_nothing latest_caches_before_it_decodes latest_ends_after_one_page
        list_always_empty listing_ends_after_one_page read_trusts_cache write_skips_check
    """,
    "txnworld_commands": """
        audit_fault_passes differing_counts_pass
    """,
    "txn_diary": """
        diary_invents_answer one_lock_per_operation
    """,
    "txn_steps_driven": """
        advance_overwrites list_always_empty put_overwrites read_trusts_cache
    """,
    "txn_machine": """
        plain_delete_above_boundary plain_read_always_none plain_reads_never_answer plain_write_always_conflicts
        views_claim_keeps_epoch
    """,
    "txn_manifest": """
        checkpoint_pins_an_older_id collects_the_newest store_checkpoint_pins_an_older_id sweep_tests_no_pins
    """,
    "txn_world": """
        finishing_advance_takes_eight trace_made_up world_always_store_error world_refuses_all
    """,
    "txn_store": """
        page_repeats_its_after search_is_linear token_repeats tokens_exhausted_early types_boundary_stops_at_no_digit
        version_name_lenient
    """,
    "txn_world_threads": """
        journal_grows_after_the_event kept_drops_write kept_invents_answer kept_restarts
    """,
    "txn_steps_views": """
        claim_at_tests_once claim_keeps_epoch holder_adopts_newest_epoch holder_update_refuses_smaller_epochs_alone
    """,
}


class Stays(unittest.TestCase):
    def test_cases(self):
        for folder, names in CASES.items():
            for name in names.split():
                for ending in (".txt", ".stdout"):
                    self.assertTrue(os.path.isfile(f"{TOP}/cases/{folder}/{name}{ending}"), f"{folder}/{name}{ending}")

    def test_tests(self):
        for place, names in TESTS.items():
            crate, module = place.split()
            with open(f"{TOP}/crates/{crate}/src/tests/{module}.rt", encoding="utf-8") as file:
                text = file.read()
            for name in names.split():
                self.assertIn(f"#[test]\nfn {name}(", text)

    def test_wrong_bodies(self):
        for crate, names in WRONG_BODIES.items():
            for name in names.split():
                self.assertTrue(os.path.isfile(f"{TOP}/crates/{crate}/wrong-bodies/{name}.edit"), f"{crate}: {name}")


if __name__ == "__main__":
    unittest.main()
