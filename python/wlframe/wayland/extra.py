"""The messages of the protocols that the bridge answers itself, beside those of table.py, and in the same form.

`docs/table-of` prints them from their descriptions in XML; the tests compare those that Debian's package wayland-protocols has with it. Those of wlroots
(their names begin with zwlr_) and of the virtual keyboard aren't there.
"""

TABLE = """
zxdg_output_manager_v1
    request destroy
    request get_xdg_output id: new_id zxdg_output_v1, output: object wl_output

zxdg_output_v1
    request destroy
    event logical_position x: int, y: int
    event logical_size width: int, height: int
    event done
    event name(2) name: string
    event description(2) description: string

zwp_primary_selection_device_manager_v1
    request create_source id: new_id zwp_primary_selection_source_v1
    request get_device id: new_id zwp_primary_selection_device_v1, seat: object wl_seat
    request destroy

zwp_primary_selection_device_v1
    request set_selection source: object zwp_primary_selection_source_v1 or null, serial: uint
    request destroy
    event data_offer offer: new_id zwp_primary_selection_offer_v1
    event selection id: object zwp_primary_selection_offer_v1 or null

zwp_primary_selection_offer_v1
    request receive mime_type: string, fd: fd
    request destroy
    event offer mime_type: string

zwp_primary_selection_source_v1
    request offer mime_type: string
    request destroy
    event send mime_type: string, fd: fd
    event cancelled

zwlr_screencopy_manager_v1
    request capture_output frame: new_id zwlr_screencopy_frame_v1, overlay_cursor: int, output: object wl_output
    request capture_output_region frame: new_id zwlr_screencopy_frame_v1, overlay_cursor: int, output: object wl_output, x: int, y: int, width: int, height: int
    request destroy

zwlr_screencopy_frame_v1
    request copy buffer: object wl_buffer
    request destroy
    request copy_with_damage(2) buffer: object wl_buffer
    event buffer format: uint wl_shm.format, width: uint, height: uint, stride: uint
    event flags flags: uint zwlr_screencopy_frame_v1.flags
    event ready tv_sec_hi: uint, tv_sec_lo: uint, tv_nsec: uint
    event failed
    event damage(2) x: uint, y: uint, width: uint, height: uint
    event linux_dmabuf(3) format: uint, width: uint, height: uint
    event buffer_done(3)
    enum error already_used 0, invalid_buffer 1
    enum flags bits y_invert 1

zwp_virtual_keyboard_manager_v1
    request create_virtual_keyboard seat: object wl_seat, id: new_id zwp_virtual_keyboard_v1
    enum error unauthorized 0

zwp_virtual_keyboard_v1
    request keymap format: uint, fd: fd, size: uint
    request key time: uint, key: uint, state: uint
    request modifiers mods_depressed: uint, mods_latched: uint, mods_locked: uint, group: uint
    request destroy
    enum error no_keymap 0

zwlr_virtual_pointer_manager_v1
    request create_virtual_pointer seat: object wl_seat or null, id: new_id zwlr_virtual_pointer_v1
    request destroy
    request create_virtual_pointer_with_output(2) seat: object wl_seat or null, output: object wl_output or null, id: new_id zwlr_virtual_pointer_v1

zwlr_virtual_pointer_v1
    request motion time: uint, dx: fixed, dy: fixed
    request motion_absolute time: uint, x: uint, y: uint, x_extent: uint, y_extent: uint
    request button time: uint, button: uint, state: uint wl_pointer.button_state
    request axis time: uint, axis: uint wl_pointer.axis, value: fixed
    request frame
    request axis_source axis_source: uint wl_pointer.axis_source
    request axis_stop time: uint, axis: uint wl_pointer.axis
    request axis_discrete time: uint, axis: uint wl_pointer.axis, value: fixed, discrete: int
    request destroy
    enum error invalid_axis 0, invalid_axis_source 1

zwlr_data_control_manager_v1
    request create_data_source id: new_id zwlr_data_control_source_v1
    request get_data_device id: new_id zwlr_data_control_device_v1, seat: object wl_seat
    request destroy

zwlr_data_control_device_v1
    request set_selection source: object zwlr_data_control_source_v1 or null
    request destroy
    request set_primary_selection(2) source: object zwlr_data_control_source_v1 or null
    event data_offer id: new_id zwlr_data_control_offer_v1
    event selection id: object zwlr_data_control_offer_v1 or null
    event finished
    event primary_selection(2) id: object zwlr_data_control_offer_v1 or null
    enum error used_source 1

zwlr_data_control_source_v1
    request offer mime_type: string
    request destroy
    event send mime_type: string, fd: fd
    event cancelled
    enum error invalid_offer 1

zwlr_data_control_offer_v1
    request receive mime_type: string, fd: fd
    request destroy
    event offer mime_type: string
"""
