//! Builds a plan by best insertion, makes steps in memory, and prints the cost of the result: `search|anneal|reduce KIND INSTANCE STEPS SEED DEVIATION`.
use kit::Global;
use move_ops::Draft;
use plan_types::{Pins, Plan, Problem, Route, Routes};
use seeded_search::SearchContext;

fn empty(problem: &Problem) -> Routes {
    let mut routes = Routes::new(Global);
    for _ in 0..problem.fleet {
        routes.push(Route::new(Global)).unwrap();
    }
    routes
}

fn built(problem: &Problem, pins: &Pins) -> Plan {
    let plan = Plan { routes: empty(problem) };
    let mut draft = Draft::build(Global, problem, pins, &plan).unwrap();
    let names: Vec<u32> = problem.requests.keys().copied().collect();
    for name in names {
        draft.place(problem, pins, name).unwrap();
    }
    draft.plan(Global).unwrap()
}

fn main() {
    let words: Vec<String> = std::env::args().skip(1).collect();
    let number = |index: usize| words[index].parse::<u64>().unwrap();
    let text = std::fs::read(&words[2]).unwrap();
    let problem = match words[1].as_str() {
        "lilim" => instance_read::read_lilim(Global, &text).unwrap(),
        _ => instance_read::read_vrp(Global, &text).unwrap(),
    };
    let pins = Pins { routes: empty(&problem) };
    let plan = built(&problem, &pins);
    let steps = match words[0].as_str() {
        "anneal" | "reduce" => anneal_search::anneal_steps,
        _ => seeded_search::search_steps,
    };
    let (start, first) = match words[0].as_str() {
        "reduce" => {
            let context = SearchContext { problem: &problem, pins: &pins, deviation: 0, seed: number(4) };
            let reduction = fleet_reduction::reduce_fleet(&kit::Attempts, Global, &context, &plan, 0, number(3) as u32).unwrap();
            (reduction.plan, reduction.step)
        }
        _ => (plan, 0),
    };
    let found = steps(Global, &problem, &pins, &start, &start, number(5) as u32, number(4), first, number(3) - first).unwrap();
    let cost = route_sched::plan_cost(&problem, &found.plan);
    println!("cost {} {} {}", cost.unplanned, cost.vehicles, cost.distance);
}
