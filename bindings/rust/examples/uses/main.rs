//! Some ninety uses of the crate, as its clients make them: `uses FOLDER`.
//!
//! It lays out configuration files and stand-ins for cargo and rustc in the folder, which must be empty. Each use prints
//! a headline and what it gets, with the folder as `DIR`. The sources compile unchanged over the published crate, and
//! `examples/uses.stdout` is what they print over it.
mod bounds;
mod cfgs;
mod choices;
mod errors;
mod flags;
mod loads;
mod origins;
mod origins_of_lists;
mod programs;
mod tables;
mod targets;
mod tree;
mod variables;
mod walks;

use std::env;
use std::error::Error;
use std::path::Path;
use std::process::ExitCode;
use tree::Tree;

/// What a use returns, so that it can use `?` for errors of all kinds.
type Outcome = Result<(), Box<dyn Error>>;

macro_rules! uses {
    ($($subject:ident { $($name:ident)* })*) => {
        [$($((stringify!($name), $subject::$name as fn(&Tree) -> Outcome)),*),*]
    };
}

fn main() -> ExitCode {
    let Some(folder) = env::args_os().nth(1) else {
        eprintln!("usage: uses FOLDER");
        return ExitCode::from(2);
    };
    match run_all(Path::new(&folder)) {
        Ok(0) => ExitCode::SUCCESS,
        Ok(failed) => {
            eprintln!("{failed} uses failed");
            ExitCode::FAILURE
        }
        Err(error) => {
            eprintln!("error: {error}");
            ExitCode::FAILURE
        }
    }
}

// Runs each use below a headline. Returns how many failed.
fn run_all(folder: &Path) -> Result<usize, Box<dyn Error>> {
    let tree = Tree::lay_out(folder)?;
    prepare_process(&tree)?;
    let mut failed = 0;
    for (name, run) in uses! {
        loads {
            load_current_directory load_given_directory load_relative_directory load_nearest_file_first load_without_files
            choose_variables choose_programs choose_cargo_home share_options_between_members
        }
        targets {
            build_for_host build_for_one_target build_for_two_targets build_for_spec_path build_for_configured_targets
            build_for_target_of_variable configure_custom_target configure_target_with_dot make_triples keep_triples_in_collections outlive_borrowed_triple
        }
        flags {
            add_coverage_flag pass_flags_with_spaces collect_flags refuse_separator_in_flag encode_empty_flags
            flags_of_each_target flags_of_variables flags_for_docs
        }
        programs {
            run_rustc run_rustc_through_wrappers run_tests_with_runner choose_linker build_command_by_hand
            find_host require_rustc_version treat_nightly_as_stable compare_cargo_with_rustc start_programs_once read_whole_target_table
        }
        cfgs {
            choose_by_os compare_cfg_values read_every_cfg parse_cfg_values read_cfg_of_client print_two_targets
        }
        walks { list_files list_files_of_process find_homes }
        origins {
            tell_which_file_set_a_value read_one_file choose_cargo_home_of_files read_variables_table
            read_target_tables read_choices_with_origins read_network_tables change_values_by_hand name_origins
        }
        origins_of_lists { read_lists_with_origins read_commands_as_written read_credentials_as_written }
        tables {
            expand_alias set_variables_for_child find_build_folders open_browser follow_replaced_sources
            choose_credentials hide_tokens read_network_settings style_terminal make_string_lists
        }
        variables {
            read_settings_of_ci_job read_tokens_of_ci_job switch_wrappers_off find_rustc_beside_cargo repeat_variable
            set_empty_values set_empty_lists
        }
        choices { parse_choices match_choices }
        errors {
            report_missing_file report_wrong_type report_mixed_merge report_mixed_tables report_bad_cfg
            report_failed_program
            convert_to_io_error convert_from_std_errors return_boxed_error
        }
        bounds { require_traits move_to_thread clone_and_change }
    } {
        println!("== {name}");
        if let Err(error) = run(&tree) {
            tree.say("FAILED", error.to_string());
            failed += 1;
        }
    }
    Ok(failed)
}

// Lets nothing of the machine in: its variables, its home and its programs.
fn prepare_process(tree: &Tree) -> std::io::Result<()> {
    for (name, _) in env::vars_os() {
        let name = name.to_string_lossy();
        if name.starts_with("CARGO") || name.starts_with("RUST") || name == "BROWSER" {
            env::remove_var(&*name);
        }
    }
    env::set_var("HOME", tree.path("home"));
    env::set_var("PATH", format!("{}:/usr/bin:/bin", tree.path("bin").display()));
    env::set_current_dir(tree.path("work/member"))
}
