//! Mask with distances, band rows, trajectory with its clamped pairs.

use std::iter;

use clamps::Taken;
use jbonsai::constants::NODATA;
use jbonsai::mlpg_adjust::{MlpgAdjust, mask::Mask, mlpg::MlpgMatrix};
use jbonsai::model::voice::{
    StreamModels,
    model::{Model, ModelParameter},
    question::Question,
    tree::{Tree, TreeNode},
    window::{Window, Windows},
};
use jbonsai::model::{
    GlobalModelMetadata, InterporationWeight, MeanVari, Models, StreamModelMetadata,
    StreamParameter, Voice, VoiceSet,
};
use jlabel::Label;

use crate::bytes::{Reader, Writer};

/// The number of a label's first state in a voice, as hts_engine counts.
const FIRST_STATE: usize = 2;

fn durations(reader: &mut Reader) -> Vec<usize> {
    reader.u32s().into_iter().map(|duration| duration as usize).collect()
}

fn windows(reader: &mut Reader) -> Windows {
    let widths = reader.u32s();
    let coefficients = reader.f64s();
    let mut rest = &coefficients[..];
    let mut windows = Vec::new();
    for width in widths {
        let (window, others) = rest.split_at(width as usize);
        windows.push(Window::new(window.to_vec()));
        rest = others;
    }
    Windows::new(windows)
}

pub fn mask(reader: &mut Reader, writer: &mut Writer) {
    let weights = reader.f64s().into_iter().map(|weight| (vec![], weight));
    let stream = StreamParameter::new(weights.collect());
    let threshold = reader.f64();
    let mask = Mask::create(&stream, threshold, &durations(reader));
    let distances = mask.boundary_distances();
    writer.u32s(mask.mask().iter().map(|&voiced| u32::from(voiced)));
    writer.u32s(distances.iter().map(|&(left, _)| left as u32));
    writer.u32s(distances.iter().map(|&(_, right)| right as u32));
}

pub fn band(reader: &mut Reader, writer: &mut Writer) {
    let windows = windows(reader);
    let (means, ivars) = (reader.f64s(), reader.f64s());
    let pairs: Vec<_> = means.into_iter().zip(ivars).map(|(m, u)| MeanVari(m, u)).collect();
    let frames = pairs.len() / windows.size();
    let parameters =
        (0..windows.size()).map(|i| pairs[i * frames..(i + 1) * frames].to_vec()).collect();
    let matrix = MlpgMatrix::calc_wuw_and_wum(&windows, parameters);
    writer.f64s(&matrix.wuw.concat());
    writer.f64s(&matrix.wum);
}

/// A tree whose leaf for label number n is pdf n, by halving.
fn tree(labels: usize) -> Tree {
    fn grow(nodes: &mut Vec<TreeNode>, first: usize, last: usize) -> usize {
        let place = nodes.len();
        nodes.push(TreeNode::Leaf { pdf_index: first + 1 });
        if first < last {
            let middle = first + (last - first) / 2 + 1;
            let question = Question::parse(&[&middle.to_string()]).unwrap();
            let yes = grow(nodes, first, middle - 1);
            let no = grow(nodes, middle, last);
            nodes[place] = TreeNode::Node { question, yes, no };
        }
        place
    }
    let mut nodes = Vec::new();
    grow(&mut nodes, 0, labels.saturating_sub(1));
    Tree { state: FIRST_STATE, nodes }
}

/// A model with one state a label, the label's number choosing its parameter.
fn model(parameters: Vec<ModelParameter>) -> Model {
    Model::new(vec![tree(parameters.len())], vec![parameters])
}

/// The branches that clamp, over the pairs of every frame that the Rust's mask says is voiced.
/// `create` itself takes them once a state, voiced or not.
fn clamped(stream: &StreamParameter, durations: &[usize], mask: &Mask) -> Taken {
    clamps::taken(); // by another case
    let states = stream.iter().zip(durations);
    let frames = states.flat_map(|((pairs, _), &duration)| iter::repeat_n(pairs, duration));
    for (pairs, _) in frames.zip(mask.mask()).filter(|&(_, &voiced)| voiced) {
        pairs.iter().for_each(|pair| drop(pair.with_ivar()));
    }
    clamps::taken()
}

pub fn trajectory(reader: &mut Reader, writer: &mut Writer) {
    let v = reader.u32() as usize;
    let masked = reader.u32() != 0;
    let (threshold, fill) = (reader.f64(), reader.f64());
    let gv_on = reader.u32() != 0;
    let gv_weight = reader.f64();
    let windows = windows(reader);
    let records = reader.f64s();
    let durations = durations(reader);
    let gv = reader.f64s();
    let switches = reader.u8s();

    let size = 2 * windows.size() * v + usize::from(masked);
    let states =
        records.chunks(size).map(|record| ModelParameter::from_linear(record.to_vec())).collect();
    let labels: Vec<_> = (0..durations.len())
        .map(|number| Label { number, gv_off: gv_on && switches[number] == 0 })
        .collect();
    let stream = StreamModels {
        metadata: StreamModelMetadata { vector_length: v, use_gv: gv_on },
        stream_model: model(states),
        // The same variances for each label: `Models` asks for the first label's.
        gv_model: gv_on.then(|| model(vec![ModelParameter::from_linear(gv); labels.len()])),
        windows,
    };
    let voices = VoiceSet(Voice {
        metadata: GlobalModelMetadata {
            num_states: 1,
            gv_off_context: Question::parse(&["gv_off"]).unwrap(),
        },
        duration_model: model(vec![]),
        stream_models: vec![stream],
    });
    let models = Models::new(&labels, &voices, &InterporationWeight);

    let stream = models.model_stream(0);
    let voiced = Mask::create(&stream.stream, threshold, &durations);
    let Taken { high, low } = clamped(&stream.stream, &durations, &voiced);
    let frames = MlpgAdjust::new(gv_weight, threshold, stream).create(&durations);
    let mut filled = Vec::new();
    for (values, &voiced) in frames.iter().zip(voiced.mask()) {
        assert!(voiced || values.iter().all(|&value| value == NODATA));
        filled.extend(values.iter().map(|&value| if voiced { value } else { fill }));
    }
    writer.f64s(&filled);
    writer.u32(high);
    writer.u32(low);
}
