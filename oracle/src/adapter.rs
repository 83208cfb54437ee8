// Appended to each copy of the original: its functions in the terms of a side.
use crate::oxideav_core;

pub mod adapter {
    use super::*;
    use crate::side::{Counting, Decoded, Index, Painted, Seen, Side, Spot};

    fn word(four: [u8; 4]) -> u16 {
        four.iter().fold(0, |w, &n| w << 4 | n as u16)
    }

    fn words(bands: &[ChgColConBand]) -> Vec<u16> {
        let mut out = Vec::new();
        for band in bands {
            out.extend([band.csln, band.ctln, band.entries.len() as u16]);
            for entry in &band.entries {
                out.extend([entry.start_col, word(entry.palette_sel), word(entry.alpha)]);
            }
        }
        out
    }

    fn pes_body(pes: &[u8]) -> Option<usize> {
        parse_pes_body(pes).map(|body| pes.len() - body.len())
    }

    fn spot(file: &[u8], position: usize) -> Spot {
        let one = VobSubIdx::default().with_cues(vec![(0, position as u64)]);
        match build_packets(&one, file).pop_front() {
            None => Spot::Skipped,
            Some(packet) => {
                let rest = &file[position..];
                match extract_spu(rest) {
                    None => Spot::None { handed_on: packet.data == rest },
                    Some(unit) => Spot::Unit { same: packet.data == unit, joined: extract_spu_from_ps(rest).is_some(), unit },
                }
            }
        }
    }

    fn bands(payload: &[u8]) -> std::result::Result<Vec<u16>, String> {
        parse_chg_colcon_payload(payload).map(|b| words(&b)).map_err(|e| e.to_string())
    }

    fn field(field: &[u8], width: usize, height: usize, start: usize, map: &mut [u8]) -> std::result::Result<(), String> {
        decode_rle_field(field, width, height, start, 2, map).map_err(|e| e.to_string())
    }

    fn unit(bytes: &[u8]) -> std::result::Result<Decoded, String> {
        let (spu, map, (width, height)) = parse_and_decode_spu(bytes).map_err(|e| e.to_string())?;
        let words = words(&spu.chg_colcon);
        let numbers = [
            spu.x1 as usize,
            spu.y1 as usize,
            spu.x2 as usize,
            spu.y2 as usize,
            word(spu.palette_sel) as usize,
            word(spu.alpha) as usize,
            0,
            spu.start_delay_raw as usize,
            0,
            spu.stop_delay_raw as usize,
            spu.forced_display as usize,
            spu.top_rle_off as usize,
            spu.bot_rle_off as usize,
            spu.saw_chg_colcon as usize,
            words.len(),
            0,
            0,
        ];
        Ok(Decoded { numbers, width: width as usize, height: height as usize, map, words })
    }

    fn index(text: &str) -> std::result::Result<crate::side::Index, String> {
        let idx = parse_idx(text).map_err(|e| e.to_string())?;
        Ok(crate::side::Index { size: idx.size, palette: idx.palette_rgb.concat(), has_palette: idx.has_palette, cues: idx.cues })
    }

    // of each cue the original makes a packet, with its duration; a file of one byte has both cues at its front
    fn duration(start: i64, next: Option<i64>) -> Option<i64> {
        let cues = std::iter::once(start).chain(next).map(|s| (s, 0)).collect();
        build_packets(&VobSubIdx::default().with_cues(cues), &[0]).pop_front().expect("a packet").duration
    }

    // a cue past the end of the file has no packet, so that the packets of later cues stand earlier
    fn seen(index: &Index, file: &[u8], cue: usize, alone: bool) -> Seen {
        let (cues, cue) = if alone { (vec![index.cues[cue]], 0) } else { (index.cues.clone(), cue) };
        let there = |c: &(i64, u64)| (c.1 as usize) < file.len();
        let (position, place) = (cues[cue].1 as usize, cues[..cue].iter().filter(|c| there(c)).count());
        let (count, left_out) = (cues.len(), cues.iter().filter(|c| !there(c)).count());
        let mut packets = build_packets(&VobSubIdx::default().with_cues(cues), file);
        if position >= file.len() && packets.len() + left_out == count {
            return Seen::Skipped;
        }
        let packet = packets.remove(place).expect("a packet");
        let shows = painted(&index.palette, &packet);
        let rest = &file[position..];
        match extract_spu(rest) {
            None => Seen::None { handed_on: packet.data == rest, refused: shows.is_err() },
            Some(unit) => Seen::Unit { same: packet.data == unit, joined: extract_spu_from_ps(rest).is_some(), unit, shows },
        }
    }

    // what the decoder, made with the palette as the original hands it on or with none, gives of a packet
    fn painted(palette: &[u8], packet: &Packet) -> std::result::Result<Box<Painted>, String> {
        let mut params = CodecParameters::video(CodecId::new(crate::VOBSUB_CODEC_ID));
        params.extradata = palette.to_vec();
        let mut decoder = make_decoder(&params).map_err(|e| e.to_string())?;
        decoder.send_packet(packet).map_err(|e| e.to_string())?;
        let Ok(Frame::Video(frame)) = decoder.receive_frame() else { return Err("no frame".into()) };
        let plane = frame.planes.into_iter().next().ok_or("no plane")?;
        let decoded = unit(&packet.data)?;
        Ok(Box::new(Painted { start: packet.pts, duration: packet.duration, decoded, time: frame.pts, stride: plane.stride, canvas: plane.data }))
    }

    fn positions(text: &str) -> Vec<usize> {
        parse_idx(text).map(|idx| idx.cues.iter().map(|c| c.1 as usize).collect()).unwrap_or_default()
    }

    pub const COUNTING: Counting = Counting { bands, field, unit };
    pub const SIDE: Side = Side {
        pes_body,
        spot,
        bands,
        field,
        unit,
        positions,
        index,
        duration,
        seen,
        write: build_demo_spu,
        counting: crate::counting::adapter::COUNTING,
        empty: crate::empty::EMPTY,
        limit: crate::limit::LIMIT,
        stored: crate::stored::STORED,
        times: crate::times::TIMES,
    };
}
